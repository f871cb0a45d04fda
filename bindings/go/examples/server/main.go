// A test server over TCP, of many connections at once, that answers each call with its own body: server PORT KEY_FILE.
package main

import (
	"fmt"
	"log"
	"net"
	"os"

	"kifzaro"
)

func main() {
	server := kifzaro.Must(kifzaro.NewServer(kifzaro.Must(os.ReadFile(os.Args[2]))))
	listener := kifzaro.Must(net.Listen("tcp", "127.0.0.1:"+os.Args[1]))
	fmt.Println("listening", listener.Addr().(*net.TCPAddr).Port)
	log.Fatal(kifzaro.Serve(listener, server, func(request []byte) []byte { return request }))
}
