# em-websocket: its server.
require 'em-websocket'
require_relative 'lines'

def say(socket, name)
  texts(name).each { |text| socket.send_text(text) }
  if short?(name)
    socket.send_binary(BINARY.pack('C*'))
    socket.ping('p')
  end
  socket.close(1000, 'bye') unless texts(name).empty?
end

EM.run do
  EM::WebSocket.run(host: '127.0.0.1', port: ARGV[1].to_i) do |socket|
    name = nil
    socket.onopen { |handshake| say(socket, name = handshake.path[1..]) }
    socket.onmessage { |data| report(name, true, data) }
    socket.onbinary { |data| report(name, false, data) }
    socket.onclose { |event| line(name, 'closed', event[:code] || '-') }
    socket.onerror { |_| }
  end
  line('ready')
end
