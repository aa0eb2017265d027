-- A load for wrk: each thread writes entries of its own, and reads those that were acknowledged. What it sent, and what it was
-- answered, go to a file of its own in the folder that is given, with the prefix of its keys.
local threads = 0

function setup(thread)
    thread:set("name", threads)
    threads = threads + 1
end

function init(args)
    log = io.open(args[1] .. "/" .. args[2] .. name, "w")
    log:setvbuf("line")
    prefix, sent, turn, acknowledged = args[2] .. name .. "-", 0, 0, {}
end

function request()
    turn = turn + 1
    if turn % 2 == 0 and #acknowledged > 0 then
        return wrk.format("GET", "/entries/" .. acknowledged[math.random(#acknowledged)])
    end
    sent = sent + 1
    log:write("sent ", prefix, sent, "\n")
    return wrk.format("POST", "/entries/" .. prefix .. sent)
end

function response(status, headers, body)
    log:write(status, " ", body)
    if status == 201 then
        acknowledged[#acknowledged + 1] = body:match("^%S+")
    end
end
