package kifzaro

import (
	"bytes"
	"errors"
	"io"
	"net"
	"strings"
	"testing"
)

const theKey, moment = 0xc8df57a46e58d132, 1_000_000

func theKeys() []byte {
	key := make([]byte, 256)
	for place := range key {
		key[place] = byte(place)
	}
	return []byte("# A key that everybody knows.\nperm " + hexOf(key) + "\n")
}

func hexOf(key []byte) string {
	const digits = "0123456789abcdef"
	var text strings.Builder
	for _, each := range key {
		text.WriteByte(digits[each>>4])
		text.WriteByte(digits[each&15])
	}
	return text.String()
}

// Each packet of the client comes so many times; how many requests there were.
func turn(client *Client, server *Server, times int) (asked int) {
	for packet := Must(client.PollTransmit(moment)); packet != nil; packet = Must(client.PollTransmit(moment)) {
		for k := 0; k < times; k++ {
			Must(server.HandlePacket(moment, packet))
			for request := Must(server.NextRequest()); request != nil; request = Must(server.NextRequest()) {
				Must(true, server.Answer(moment, append([]byte("re: "), request...)))
				asked++
			}
		}
	}
	for _, packet, err := server.PollTransmit(); Must(packet, err) != nil; _, packet, err = server.PollTransmit() {
		Must(true, client.HandlePacket(moment, packet))
	}
	return asked
}

func TestPacketsThatComeTwiceRunOnce(t *testing.T) {
	client, server := Must(NewClient(theKeys(), theKey)), Must(NewServer(theKeys()))
	defer client.Close()
	call, asked := Must(client.Submit([]byte("ask me!!"), 0)), 0
	for k := 0; k < 5; k++ {
		asked += turn(client, server, 2)
	}
	state, code, err := client.State(call)
	reply := Must(client.TakeReply(call))
	if asked != 1 || state != Done || code != 0 || err != nil || string(reply) != "re: ask me!!" || !Must(client.CallsDecided()) {
		t.Fatal(asked, state, code, err, string(reply))
	}
}

func TestWhatIsRefused(t *testing.T) {
	client, server := Must(NewClient(theKeys(), theKey)), Must(NewServer(theKeys()))
	_, noKeys := NewClient([]byte("no key file"), theKey)
	_, noKey := NewClient(nil, theKey)
	_, badBody := client.Submit([]byte("odd"), 0)
	_, noReply := client.TakeReply(Must(client.Submit([]byte("even"), 0)))
	_, refused := server.HandlePacket(moment, make([]byte, 104))
	for place, row := range [][2]error{{noKeys, BadKeys}, {noKey, NoKey}, {badBody, BadBody}, {noReply, NoReply}, {client.Ping(1), NotOpen},
		{client.HandlePacket(moment, nil), RefusedSize}, {refused, RefusedKey}, {server.Answer(moment, []byte("even")), NotAsked}} {
		if !errors.Is(row[0], row[1]) || IsRefused(row[0]) != (place == 5 || place == 6) {
			t.Error(place, row[0], row[1])
		}
	}
	client.Close()
	client.Close()
	if err := client.Attach(); err != Closed {
		t.Error(err)
	}
	if Busy.Error() != "a request waits for its answer" || !strings.Contains(Version(), ".") || !strings.Contains(Build(), "proved") {
		t.Error(Busy, Version(), Build())
	}
}

func TestALongReply(t *testing.T) {
	client, server := Must(NewClient(theKeys(), theKey)), Must(NewServer(theKeys()))
	call, long := Must(client.Submit([]byte("much"), 0)), bytes.Repeat([]byte("long"), 65536)
	for Must(server.Ready()) == 0 {
		for packet := Must(client.PollTransmit(moment)); packet != nil; packet = Must(client.PollTransmit(moment)) {
			Must(server.HandlePacket(moment, packet))
		}
		for _, packet, _ := server.PollTransmit(); packet != nil; _, packet, _ = server.PollTransmit() {
			Must(true, client.HandlePacket(moment, packet))
		}
	}
	first, again := Must(server.NextRequest()), Must(server.NextRequest())
	if string(first) != "much" || string(again) != "much" || server.Tick(moment) != Busy || server.Restart() != Busy || server.Answer(moment, []byte("odd")) != BadReply {
		t.Fatal(string(first), string(again))
	}
	Must(true, server.Answer(moment, long))
	for k := 0; k < 3; k++ {
		turn(client, server, 1)
	}
	if !bytes.Equal(Must(client.TakeReply(call)), long) {
		t.Fatal("the reply is another")
	}
}

func TestKeyID(t *testing.T) {
	if Must(KeyID("32d1586ea457dfc8")) != theKey {
		t.Fatal(Must(KeyID("32d1586ea457dfc8")))
	}
	if _, err := KeyID("32d1"); err == nil {
		t.Fatal("it is too short")
	}
}

func TestOverTCP(t *testing.T) {
	listener := Must(net.Listen("tcp", "127.0.0.1:0"))
	server := Must(NewServer(theKeys()))
	go Serve(listener, server, func(request []byte) []byte { return append([]byte("re: "), request...) })
	clients := make(chan string)
	for k := 0; k < 20; k++ {
		go func() {
			client := Must(NewClient(theKeys(), theKey))
			call, other := Must(client.Submit([]byte("ask me!!"), 0)), Must(client.Submit([]byte("1234"), 0))
			Must(true, client.Run(Must(net.Dial("tcp", listener.Addr().String()))))
			clients <- string(Must(client.TakeReply(call))) + ", " + string(Must(client.TakeReply(other)))
		}()
	}
	for k := 0; k < 20; k++ {
		if told := <-clients; told != "re: ask me!!, re: 1234" {
			t.Error(told)
		}
	}
	listener.Close()
}

// A reply that isn't taken is an error of its call, and leaves the server at work.
func TestAReplyThatIsNotTaken(t *testing.T) {
	listener := make(pipes)
	go Serve(listener, Must(NewServer(theKeys())), func(request []byte) []byte { return request[:len(request)-int(request[0]-'0')] })
	for _, row := range [][2]string{{"3dd!", badReply}, {"4444even", "4444"}} {
		if replies := Must(Must(NewClient(theKeys(), theKey)).Call(listener.dial(), row[0])); replies[0] != row[1] {
			t.Error(replies)
		}
	}
	listener.Close()
}

// A connection that ends before the reply: the call is sent again over the next one, and runs once.
func TestAnotherConnection(t *testing.T) {
	listener, asked := make(pipes), 0
	go Serve(listener, Must(NewServer(theKeys())), func(request []byte) []byte { asked++; return request })
	client := Must(NewClient(theKeys(), theKey))
	call := Must(client.Submit([]byte("ask me!!"), 0))
	for cut := 1; ; cut++ {
		if err := client.Run(&cutConn{listener.dial(), cut}); err == nil {
			break
		}
	}
	if reply := Must(client.TakeReply(call)); string(reply) != "ask me!!" || asked != 1 {
		t.Error(string(reply), asked)
	}
	listener.Close()
}

// A connection that fails behind so many reads.
type cutConn struct {
	net.Conn
	reads int
}

func (c *cutConn) Read(into []byte) (int, error) {
	if c.reads == 0 {
		c.Conn.Close()
		return 0, io.ErrUnexpectedEOF
	}
	c.reads--
	return c.Conn.Read(into)
}

// A client whose clock is a minute ahead of the server's: its call is held, and goes in another session.
func TestAClockThatIsAhead(t *testing.T) {
	listener := Must(net.Listen("tcp", "127.0.0.1:0"))
	go func() {
		server, wire := Must(NewServer(theKeys())), Must(ServerWire(Must(listener.Accept())))
		for packet, err := wire.Receive(); err == nil; packet, err = wire.Receive() {
			Must(server.HandlePacket(Now()-60, packet))
			for request := Must(server.NextRequest()); request != nil; request = Must(server.NextRequest()) {
				Must(true, server.Answer(Now()-60, request))
			}
			for _, out, err := server.PollTransmit(); Must(out, err) != nil; _, out, err = server.PollTransmit() {
				Must(true, wire.Send(out))
			}
		}
	}()
	client, conn := Must(NewClient(theKeys(), theKey)), Must(net.Dial("tcp", listener.Addr().String()))
	before := Must(client.Session())
	if replies := Must(client.Call(conn, "ask me!!")); replies[0] != "ask me!!" || Must(client.Session()) == before {
		t.Error(replies)
	}
	conn.Close()
	listener.Close()
}

// Connections without a network, which hold no byte that isn't read.
type pipes chan net.Conn

func (p pipes) Accept() (net.Conn, error) {
	if conn, open := <-p; open {
		return conn, nil
	}
	return nil, net.ErrClosed
}

func (p pipes) Close() error   { close(p); return nil }
func (p pipes) Addr() net.Addr { return nil }
func (p pipes) dial() net.Conn {
	near, far := net.Pipe()
	p <- far
	return near
}

// A connection that isn't read holds up no other.
func TestAConnectionThatIsNotRead(t *testing.T) {
	listener := make(pipes)
	go Serve(listener, Must(NewServer(theKeys())), func(request []byte) []byte { return request })
	deaf := Must(NewClient(theKeys(), theKey))
	Must(deaf.Submit([]byte("unheard!"), 0))
	wire := Must(ClientWire(listener.dial()))
	Must(true, wire.Send(Must(deaf.PollTransmit(Now()))))
	if replies := Must(Must(NewClient(theKeys(), theKey)).Call(listener.dial(), "ask me!!")); replies[0] != "ask me!!" {
		t.Error(replies)
	}
	listener.Close()
}
