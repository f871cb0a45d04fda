package kifzaro

import (
	"errors"
	"io"
	"log"
	"net"
	"sync"
	"time"
)

// Must gives the value, and panics where there is an error: for tests and small programs.
func Must[T any](value T, err error) T {
	if err != nil {
		panic(err)
	}
	return value
}

// Call submits a call with each of these bodies, has Run decide them over a new connection, and gives their replies in order. A body and a
// reply are bytes, which a string holds.
func (c *Client) Call(stream io.ReadWriter, bodies ...string) ([]string, error) {
	var calls []uint64
	for _, body := range bodies {
		call, err := c.Submit([]byte(body), 0)
		if err != nil {
			return nil, err
		}
		calls = append(calls, call)
	}
	if err := c.Run(stream); err != nil {
		return nil, err
	}
	var replies []string
	for _, call := range calls {
		reply, err := c.TakeReply(call)
		if err != nil {
			return nil, err
		}
		replies = append(replies, string(reply))
	}
	return replies, nil
}

// Run brings the client's packets over a new connection, of the intermediate form, and the server's back, until each call is decided. Where it
// gives an error, it may be done again over another connection: what was sent and isn't answered is sent again.
func (c *Client) Run(stream io.ReadWriter) error {
	if err := c.Attach(); err != nil && err != Ended {
		return err
	}
	wire, err := ClientWire(stream)
	for err == nil {
		if err = c.sendAll(wire); err != nil {
			break
		}
		decided, failed := c.CallsDecided()
		if decided || failed != nil {
			return failed
		}
		var packet []byte
		if packet, err = wire.Receive(); err == nil {
			err = c.HandlePacket(Now(), packet)
		}
		if err == nil {
			err = c.RenewIfHeld()
		}
	}
	return err
}

// RenewIfHeld goes on in another session where the client's clock is ahead of the server's: where a call is held, and none is sent. It looks at
// each call. Run does so.
func (c *Client) RenewIfHeld() error {
	isHeld := false
	for call := uint64(1); ; call++ {
		state, _, err := c.State(call)
		switch {
		case err == NoCall && isHeld:
			if err = c.Renew(); err == NotOpen {
				return nil
			}
			return err
		case err == NoCall || state == Sent:
			return nil
		case err != nil:
			return err
		}
		isHeld = isHeld || state == Held
	}
}

func (c *Client) sendAll(wire *Wire) error {
	for {
		packet, err := c.PollTransmit(Now())
		if err != nil || packet == nil {
			return err
		}
		if err := wire.Send(packet); err != nil {
			return err
		}
	}
}

// How many packets may wait for one connection, and how long one that sends no more is still written to.
const (
	waitingMax  = 256
	lastSeconds = 10
)

// A connection: its end of the wire, and the packets that wait to be sent over it.
type line struct {
	conn    net.Conn
	wire    *Wire
	waiting chan []byte
}

// What all connections of a server share.
type desk struct {
	sync.Mutex
	server *Server
	answer func(request []byte) []byte
	ends   map[SessionName]*line
}

// Serve accepts connections of the intermediate form until the listener fails, and has all of them served by one server: each call is
// answered by answer, one after the other. Each connection is written to by a goroutine of its own, so one that isn't read holds up no other;
// it is closed where 256 packets wait for it. Packets that don't open are logged, and so is a reply that isn't taken, in whose place rpc_error
// goes, 500 BAD_REPLY. Nothing else calls with the server meanwhile.
func Serve(listener net.Listener, server *Server, answer func(request []byte) []byte) error {
	desk := &desk{server: server, answer: answer, ends: map[SessionName]*line{}}
	for {
		conn, err := listener.Accept()
		if err != nil {
			return err
		}
		go desk.serve(conn)
	}
}

func (d *desk) serve(conn net.Conn) {
	wire, err := ServerWire(conn)
	its := &line{conn, wire, make(chan []byte, waitingMax)}
	go its.sendAll()
	for err == nil {
		var packet []byte
		if packet, err = wire.Receive(); err == nil {
			err = d.take(its, packet)
		}
	}
	if err != io.EOF {
		log.Print(err)
	}
	d.Lock()
	defer d.Unlock()
	for name, end := range d.ends {
		if end == its {
			delete(d.ends, name)
		}
	}
	close(its.waiting)
	conn.SetWriteDeadline(time.Now().Add(lastSeconds * time.Second))
}

// Sends what waits, until nothing more can come or the connection fails.
func (l *line) sendAll() {
	defer l.conn.Close()
	for packet := range l.waiting {
		if err := l.wire.Send(packet); err != nil {
			return
		}
	}
}

// A packet came over a connection: what is ready is answered, and what is due is handed to the connections that it is for.
func (d *desk) take(its *line, packet []byte) error {
	d.Lock()
	defer d.Unlock()
	name, err := d.server.HandlePacket(Now(), packet)
	if IsRefused(err) {
		log.Print(err)
		return nil
	}
	if err != nil {
		return err
	}
	if d.ends[name] != its {
		d.ends[name] = its
		if err := d.server.Attach(name, Now()); err != nil {
			return err
		}
	}
	if err := d.server.Tick(Now()); err != nil {
		return err
	}
	if err := d.answerAll(); err != nil {
		return err
	}
	return d.handOut()
}

// An error in the place of a reply that isn't taken: without one the server would be busy for good.
const badReply = "\x19\xca\x44\x21\xf4\x01\x00\x00\x09BAD_REPLY\x00\x00"

func (d *desk) answerAll() error {
	for {
		request, err := d.server.NextRequest()
		if err != nil || request == nil {
			return err
		}
		err = d.server.Answer(Now(), d.answer(request))
		if errors.Is(err, BadReply) {
			log.Print(err)
			err = d.server.Answer(Now(), []byte(badReply))
		}
		if err != nil {
			return err
		}
	}
}

// Packets for sessions whose connection has ended are let go: the server says again what matters when another one comes.
func (d *desk) handOut() error {
	for {
		name, packet, err := d.server.PollTransmit()
		if err != nil || packet == nil {
			return err
		}
		if end := d.ends[name]; end != nil {
			select {
			case end.waiting <- packet:
			default:
				end.conn.Close()
			}
		}
	}
}
