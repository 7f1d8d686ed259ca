// golang.org/x/net/websocket: its Codec gives each frame's payload and opcode.
package main

import (
	"golang.org/x/net/websocket"
)

type received struct {
	isText bool
	data   []byte
}

var codec = websocket.Codec{
	Unmarshal: func(data []byte, kind byte, value any) error {
		*value.(*received) = received{kind == websocket.TextFrame, data}
		return nil
	},
}

func talk(connection *websocket.Conn, name string) {
	for _, text := range texts(name) {
		websocket.Message.Send(connection, text)
	}
	if isShort(name) {
		websocket.Message.Send(connection, binaryMessage)
	}
	if texts(name) != nil {
		connection.WriteClose(1000)
	}
	for {
		var got received
		if err := codec.Receive(connection, &got); err != nil {
			line(name, "closed", "-")
			return
		}
		message(name, got.isText, got.data)
	}
}

func main() {
	server := websocket.Server{Handler: func(connection *websocket.Conn) {
		talk(connection, connection.Request().URL.Path[1:])
	}}
	run(server.ServeHTTP, func(url, name string) {
		if connection, err := websocket.Dial(url, "", "http://127.0.0.1/"); err == nil {
			talk(connection, name)
			connection.Close()
		}
	})
}
