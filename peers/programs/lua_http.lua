-- lua-http: its server's and client's http.websocket.
local cqueues = require 'cqueues'
local server = require 'http.server'
local websocket = require 'http.websocket'

-- After an error in a session its connection would end whenever its memory is reclaimed.
collectgarbage('stop')

local function line(...)
    io.stdout:write(table.concat({...}, ' '), '\n')
    io.stdout:flush()
end

local function texts(name)
    if name:find('^long') then return {('a'):rep(65535), ('a'):rep(65536)} end
    return name:find('^short') and {'', 'Hello', ('a'):rep(125), ('a'):rep(126)} or {}
end

local function hex(data)
    return (data:gsub('.', function(byte) return ('%02x'):format(byte:byte()) end))
end

local function say(connection, name)
    for _, text in ipairs(texts(name)) do connection:send(text, 'text') end
    if name:find('^short') then
        connection:send('\0\1\254\255', 'binary')
        connection:send_ping('p')
    end
    if #texts(name) > 0 then connection:close(1000, 'bye') end
end

local function talk(connection, name)
    say(connection, name)
    while true do
        local data, kind = connection:receive()
        if not data then break end
        line(name, kind, hex(data))
    end
    connection:close()
    line(name, 'closed', tostring(connection.got_close_code or '-'))
end

local function serve(port)
    local listener = server.listen({
        host = '127.0.0.1', port = port,
        onstream = function(_, stream)
            local headers = stream:get_headers()
            local connection = websocket.new_from_stream(stream, headers)
            if connection and connection:accept() then talk(connection, headers:get(':path'):sub(2)) end
        end,
        onerror = function() end,
    })
    listener:listen()
    line('ready')
    listener:loop()
end

local function connect(url)
    local connection = websocket.new_from_uri(url)
    if connection:connect() then talk(connection, url:match('[^/]*$')) end
end

local function connect_all()
    local queue = cqueues.new()
    io.stdin:setvbuf('no')
    queue:wrap(function()
        line('ready')
        while cqueues.poll({pollfd = 0, events = 'r'}) do
            local url = io.read('*l')
            if not url then break end
            queue:wrap(connect, url)
        end
    end)
    -- An error in a session ends the loop, but not the other sessions.
    repeat queue:loop() until queue:empty()
end

if arg[1] == 'server' then serve(tonumber(arg[2])) else connect_all() end
