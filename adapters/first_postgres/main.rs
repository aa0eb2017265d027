//! A first program with a pool of connections to PostgreSQL.
#![tactic(auto)]

use postgres::PostgresConnectionManager;
use r2d2::Builder;
use std::time::Duration;

fn main(rt: HostRuntime) -> Result<(), anyhow::Error> {
    // (Without proof, logging in takes seconds.)
    let (address, timeout) = ("127.0.0.1:5432", Duration::from_secs(30));
    let manager = PostgresConnectionManager::new(
        rt, address, "postgres", "postgres", timeout,
    )?.with_password("secret")?;
    let pool = Builder::new().max_size(4).build(rt, manager)?;
    let mut postgres = pool.get()?;
    for row in postgres.query("SELECT 6 * 7")? {
        println!(rt; "{:?}", row.get(0))?;
    }
    Ok(())
}
