# The websocket gem: as its documentation uses it, over a socket and a thread for each connection. It answers nothing by
# itself; the program answers pings and a Close, and closes with the code that the gem names for an error.
require 'websocket'
require_relative 'lines'

class Talk
  def initialize(socket, handshake, name)
    @socket, @handshake, @name = socket, handshake, name
  end

  def open
    @socket.write(@handshake.to_s) if @name
    @handshake << @socket.readpartial(4096) until @handshake.finished?
    @socket.write(@handshake.to_s) unless @name
    part = @name ? WebSocket::Frame::Incoming::Client : WebSocket::Frame::Incoming::Server
    @outgoing = @name ? WebSocket::Frame::Outgoing::Client : WebSocket::Frame::Outgoing::Server
    @name ||= @handshake.path[1..]
    @incoming = part.new(version: @handshake.version)
    @incoming << @handshake.leftovers.to_s
    say
  end

  def send(data, type, code = nil)
    @socket.write(@outgoing.new(version: @handshake.version, data: data, type: type, code: code).to_s)
  end

  def say
    texts(@name).each { |text| send(text, :text) }
    if short?(@name)
      send(BINARY.pack('C*'), :binary)
      send('p', :ping)
    end
    send('bye', :close, 1000) unless texts(@name).empty?
  end

  # Returns whether the connection goes on.
  def handle(frame)
    case frame.type
    when :text, :binary then report(@name, frame.type == :text, frame.to_s)
    when :ping then send(frame.to_s, :pong)
    when :close
      @code = frame.code
      send('', :close, frame.code) if texts(@name).empty?
      return false
    end
    true
  end

  def frames
    while (frame = @incoming.next)
      return false unless handle(frame)
    end
    return true unless @incoming.error?

    codes = { invalid_payload_encoding: 1007, frame_too_long: 1009 }
    send('', :close, codes.fetch(@incoming.error, 1002))
    false
  end

  def run
    open
    @incoming << @socket.readpartial(65_536) while frames
  rescue SystemCallError, IOError, WebSocket::Error => e
    @code ||= e.is_a?(WebSocket::Error) ? e.class.name : nil
  ensure
    @socket.close
    line(@name, 'closed', @code || '-')
  end
end

serve = ->(socket) { Talk.new(socket, WebSocket::Handshake::Server.new, nil).run }
connect = lambda do |url, name|
  Talk.new(TCPSocket.new('127.0.0.1', URI(url).port), WebSocket::Handshake::Client.new(url: url), name).run
end
run(serve, connect)
