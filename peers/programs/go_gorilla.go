// gorilla/websocket: Upgrader and Dialer.
package main

import (
	"net/http"

	"github.com/gorilla/websocket"
)

func say(connection *websocket.Conn, name string) {
	for _, text := range texts(name) {
		connection.WriteMessage(websocket.TextMessage, []byte(text))
	}
	if isShort(name) {
		connection.WriteMessage(websocket.BinaryMessage, binaryMessage)
		connection.WriteMessage(websocket.PingMessage, []byte("p"))
	}
	if texts(name) != nil {
		connection.WriteMessage(websocket.CloseMessage, websocket.FormatCloseMessage(1000, "bye"))
	}
}

func talk(connection *websocket.Conn, name string) {
	defer connection.Close()
	say(connection, name)
	for {
		kind, data, err := connection.ReadMessage()
		if err != nil {
			if closed, ok := err.(*websocket.CloseError); ok {
				line(name, "closed", closed.Code)
			} else {
				line(name, "closed", "-")
			}
			return
		}
		message(name, kind == websocket.TextMessage, data)
	}
}

func main() {
	upgrader := websocket.Upgrader{}
	run(func(response http.ResponseWriter, request *http.Request) {
		if connection, err := upgrader.Upgrade(response, request, nil); err == nil {
			talk(connection, request.URL.Path[1:])
		}
	}, func(url, name string) {
		if connection, _, err := websocket.DefaultDialer.Dial(url, nil); err == nil {
			talk(connection, name)
		}
	})
}
