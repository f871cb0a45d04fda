// Calls over TCP: client PORT KEY_FILE KEY BODY..
package main

import "fmt"
import "kifzaro"
import "net"
import "os"

func main() {
	client := kifzaro.Must(kifzaro.NewClient(kifzaro.Must(os.ReadFile(os.Args[2])), kifzaro.Must(kifzaro.KeyID(os.Args[3]))))
	conn := kifzaro.Must(net.Dial("tcp", "127.0.0.1:"+os.Args[1]))
	for _, reply := range kifzaro.Must(client.Call(conn, os.Args[4:]...)) {
		fmt.Println(reply)
	}
}
