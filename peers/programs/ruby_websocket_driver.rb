# websocket-driver: as its documentation uses it, over a socket and a thread for each connection.
require 'websocket/driver'
require_relative 'lines'

class Talk
  attr_reader :url

  def initialize(socket, url, name)
    @socket, @url, @name, @is_open = socket, url, name, true
    @driver = url ? WebSocket::Driver.client(self) : WebSocket::Driver.server(self)
    @driver.on(:connect) { accept } unless url
    @driver.on(:open) { say }
    @driver.on(:message) { |event| receive(event.data) }
    @driver.on(:close) { |event| @code = event.code; @is_open = false }
    @driver.on(:error) { |_| }
    @driver.start if url
  end

  def accept
    @name = URI(@driver.env['REQUEST_URI'] || @driver.env['PATH_INFO']).path[1..]
    @driver.start
  end

  def write(data)
    @socket.write(data)
  rescue SystemCallError, IOError
    @is_open = false
  end

  def receive(data)
    data.is_a?(String) ? report(@name, true, data) : report(@name, false, data.pack('C*'))
  end

  def say
    texts(@name).each { |text| @driver.text(text) }
    if short?(@name)
      @driver.binary(BINARY)
      @driver.ping('p')
    end
    @driver.close('bye', 1000) unless texts(@name).empty?
  end

  def run
    @driver.parse(@socket.readpartial(65_536)) while @is_open
  rescue SystemCallError, IOError
    @is_open = false
  ensure
    @socket.close
    line(@name, 'closed', @code || '-')
  end
end

serve = lambda { |socket| Talk.new(socket, nil, nil).run }
connect = lambda do |url, name|
  Talk.new(TCPSocket.new('127.0.0.1', URI(url).port), url, name).run
end
run(serve, connect)
