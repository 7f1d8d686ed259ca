// nhooyr.io/websocket: Accept and Dial.
package main

import (
	"context"
	"net/http"
	"time"

	"nhooyr.io/websocket"
)

func say(connection *websocket.Conn, name string) {
	background := context.Background()
	for _, text := range texts(name) {
		connection.Write(background, websocket.MessageText, []byte(text))
	}
	if isShort(name) {
		connection.Write(background, websocket.MessageBinary, binaryMessage)
		if writer, err := connection.Writer(background, websocket.MessageText); err == nil {
			writer.Write([]byte("Hel"))
			writer.Write([]byte("lo"))
			writer.Close()
		}
		// It waits for the pong, which is read below.
		go connection.Ping(background)
	}
	if texts(name) != nil {
		time.Sleep(200 * time.Millisecond)
		connection.Close(websocket.StatusNormalClosure, "bye")
	}
}

func talk(connection *websocket.Conn, name string) {
	defer connection.Close(websocket.StatusInternalError, "")
	if isUnlimited {
		connection.SetReadLimit(1 << 30)
	}
	say(connection, name)
	for {
		kind, data, err := connection.Read(context.Background())
		if err != nil {
			line(name, "closed", int(websocket.CloseStatus(err)))
			return
		}
		message(name, kind == websocket.MessageText, data)
	}
}

func main() {
	run(func(response http.ResponseWriter, request *http.Request) {
		if connection, err := websocket.Accept(response, request, nil); err == nil {
			talk(connection, request.URL.Path[1:])
		}
	}, func(url, name string) {
		if connection, _, err := websocket.Dial(context.Background(), url, nil); err == nil {
			talk(connection, name)
		}
	})
}
