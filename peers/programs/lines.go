// The line protocol of the programs in Go, and what each peer sends of its own (see ../README.md).
package main

import (
	"bufio"
	"fmt"
	"net"
	"net/http"
	"os"
	"strings"
	"sync"
)

var binaryMessage = []byte{0, 1, 254, 255}

var printing sync.Mutex

// Whether the word `unlimited` comes before the role, which then is the first word.
var isUnlimited = isAsked("unlimited")

func isAsked(setting string) bool {
	found := os.Args[1] == setting
	if found {
		os.Args = os.Args[1:]
	}
	return found
}

func line(words ...any) {
	printing.Lock()
	defer printing.Unlock()
	fmt.Println(words...)
}

func texts(name string) []string {
	if strings.HasPrefix(name, "long") {
		return []string{strings.Repeat("a", 65535), strings.Repeat("a", 65536)}
	}
	if isShort(name) {
		return []string{"", "Hello", strings.Repeat("a", 125), strings.Repeat("a", 126)}
	}
	return nil
}

func isShort(name string) bool {
	return strings.HasPrefix(name, "short")
}

func message(name string, isText bool, data []byte) {
	kind := "binary"
	if isText {
		kind = "text"
	}
	line(name, kind, fmt.Sprintf("%x", data))
}

// Serves, or connects to each URL that comes.
func run(handler http.HandlerFunc, connect func(url, name string)) {
	if os.Args[1] == "server" {
		listener, err := net.Listen("tcp", "127.0.0.1:"+os.Args[2])
		if err != nil {
			panic(err)
		}
		line("ready")
		panic(http.Serve(listener, handler))
	}
	line("ready")
	urls := bufio.NewScanner(os.Stdin)
	for urls.Scan() {
		url := urls.Text()
		go connect(url, url[strings.LastIndex(url, "/")+1:])
	}
}
