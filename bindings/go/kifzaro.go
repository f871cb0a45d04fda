// Package kifzaro has both ends of MTProto 2.0 sessions: a client and a server without sockets and clocks. Packets come in by HandlePacket
// and go out by PollTransmit. A moment is Unix time in seconds; Now is the present one. A method that gives an error leaves its object as if
// it hadn't been called, unless it says otherwise. An object is used by one goroutine at a time.
//
// It stands over bindings/out/libkifzaro.a, which bindings/build makes.
package kifzaro

/*
#cgo CFLAGS: -I${SRCDIR}/../c
#cgo LDFLAGS: ${SRCDIR}/../out/libkifzaro.a
#include "kifzaro.h"
*/
import "C"

import (
	"crypto/rand"
	"encoding/binary"
	"encoding/hex"
	"errors"
	"runtime"
	"time"
)

// Error is why a call gives nothing: a status of kifzaro.h.
type Error uint32

// The errors. The five of packets say why one doesn't open, and IsRefused tells them.
const (
	Memory            Error = C.KF_MEMORY
	Closed            Error = C.KF_NO_HANDLE
	BadKeys           Error = C.KF_BAD_KEYS
	NoKey             Error = C.KF_NO_KEY
	BadBody           Error = C.KF_BAD_BODY
	NoCall            Error = C.KF_NO_CALL
	TooMany           Error = C.KF_TOO_MANY
	Ended             Error = C.KF_ENDED
	NotOpen           Error = C.KF_NOT_OPEN
	NotSent           Error = C.KF_NOT_SENT
	NoReply           Error = C.KF_NO_REPLY
	Spent             Error = C.KF_SPENT
	Busy              Error = C.KF_BUSY
	NotAsked          Error = C.KF_NOT_ASKED
	BadReply          Error = C.KF_BAD_REPLY
	RefusedSize       Error = C.KF_REFUSED_SIZE
	RefusedKey        Error = C.KF_REFUSED_KEY
	RefusedMessageKey Error = C.KF_REFUSED_MESSAGE_KEY
	RefusedLength     Error = C.KF_REFUSED_LENGTH
	RefusedPadding    Error = C.KF_REFUSED_PADDING
)

// Error says what the status says.
func (e Error) Error() string { return C.GoString(C.kf_status_text(C.kf_status(e))) }

// IsRefused tells whether an error says that a packet doesn't open.
func IsRefused(err error) bool {
	var status Error
	return errors.As(err, &status) && status >= RefusedSize && status <= RefusedPadding
}

// State is what became of a call.
type State uint32

const (
	Queued  State = C.KF_QUEUED  // It waits to be sent.
	Sent    State = C.KF_SENT    // It was sent, and isn't answered.
	Held    State = C.KF_HELD    // The client's clock is ahead of the server's, and it waits for another session: Renew, once none is sent.
	Done    State = C.KF_DONE    // It has a reply, which may be an error.
	Refused State = C.KF_REFUSED // It never executes; the code is the server's, 0 where the client gave it up.
	Unknown State = C.KF_UNKNOWN // Unknown whether it executed; 1 the server lost the session, 2 renewed, 3 ended, 4 forgotten.
)

// SessionName names a session: the identifier of its key, and its number under that key.
type SessionName struct{ Key, Session uint64 }

// Version is the library's version.
func Version() string { return C.GoString(C.kf_version()) }

// Build is of what the library was built: "proved", or "checked, not proved".
func Build() string { return C.GoString(C.kf_build()) }

// Now is the present moment.
func Now() uint64 { return uint64(time.Now().Unix()) }

// KeyID is the identifier of a key, from the 16 digits that examples/make_keys and mtp write.
func KeyID(digits string) (uint64, error) {
	key, err := hex.DecodeString(digits)
	if err != nil || len(key) != 8 {
		return 0, errors.New("a key's identifier has 16 digits")
	}
	return binary.LittleEndian.Uint64(key), nil
}

func seed() ([]byte, error) {
	seed := make([]byte, 32)
	_, err := rand.Read(seed)
	return seed, err
}

func must(status C.kf_status) error {
	if status == C.KF_OK {
		return nil
	}
	return Error(status)
}

// The first of some bytes; nil where there are none, as the header has it.
func first(bytes []byte) *C.uint8_t {
	if len(bytes) == 0 {
		return nil
	}
	return (*C.uint8_t)(&bytes[0])
}

// The bytes that a call puts into room, with more of it where it asks for more.
func bytesOf(call func(room *C.uint8_t, roomLen C.size_t, count *C.size_t) C.kf_status) ([]byte, error) {
	room := make([]byte, 2048)
	var count C.size_t
	status := call(first(room), C.size_t(len(room)), &count)
	if status == C.KF_TOO_SHORT {
		room = make([]byte, int(count))
		status = call(first(room), C.size_t(len(room)), &count)
	}
	if status != C.KF_OK {
		return nil, Error(status)
	}
	return room[:int(count)], nil
}

// Client is a client. Its packets go to the server, and the server's come to HandlePacket.
type Client struct{ handle C.kf_client }

// NewClient makes a client under the permanent key with this identifier, which the text of a key file has.
func NewClient(keys []byte, key uint64) (*Client, error) {
	seed, err := seed()
	if err != nil {
		return nil, err
	}
	client := new(Client)
	if err := must(C.kf_client_new(&client.handle, first(keys), C.size_t(len(keys)), C.uint64_t(key), first(seed))); err != nil {
		return nil, err
	}
	runtime.SetFinalizer(client, (*Client).Close)
	return client, nil
}

// NewTempClient makes a client under the temporary key temp, which the server is to bind to the permanent key perm up to the moment expires.
func NewTempClient(keys []byte, temp, perm, expires uint64) (*Client, error) {
	seed, err := seed()
	if err != nil {
		return nil, err
	}
	client := new(Client)
	if err := must(C.kf_client_new_temp(&client.handle, first(keys), C.size_t(len(keys)), C.uint64_t(temp), C.uint64_t(perm), C.uint64_t(expires), first(seed))); err != nil {
		return nil, err
	}
	runtime.SetFinalizer(client, (*Client).Close)
	return client, nil
}

// Close frees the client now; else it is freed when nothing holds it. Every later call gives Closed.
func (c *Client) Close() {
	C.kf_client_free(&c.handle)
	runtime.KeepAlive(c)
}

// Submit submits a call, whole words of 4 bytes, that is to execute after the call after, or after none where it is 0. It gives the call's
// number, from 1 on.
func (c *Client) Submit(body []byte, after uint64) (uint64, error) {
	var call C.uint64_t
	err := must(C.kf_client_submit(&c.handle, first(body), C.size_t(len(body)), C.uint64_t(after), &call))
	runtime.KeepAlive(c)
	return uint64(call), err
}

// Attach says that a connection was opened after an earlier one: what was sent and isn't answered is sent again. Run does so.
func (c *Client) Attach() error {
	defer runtime.KeepAlive(c)
	return must(C.kf_client_attach(&c.handle))
}

// HandlePacket takes a packet that came. Of one that doesn't open (IsRefused), isn't of this session or isn't lawful only the moment counts.
func (c *Client) HandlePacket(now uint64, packet []byte) error {
	defer runtime.KeepAlive(c)
	return must(C.kf_client_handle_packet(&c.handle, C.uint64_t(now), first(packet), C.size_t(len(packet))))
}

// PollTransmit gives the packet that is to be sent next, or nil where there is none. Each is handed out once.
func (c *Client) PollTransmit(now uint64) ([]byte, error) {
	defer runtime.KeepAlive(c)
	packet, err := bytesOf(func(room *C.uint8_t, roomLen C.size_t, count *C.size_t) C.kf_status {
		return C.kf_client_poll_transmit(&c.handle, C.uint64_t(now), room, roomLen, count)
	})
	if len(packet) == 0 {
		return nil, err
	}
	return packet, err
}

// Renew goes on in another session: of calls that are sent it isn't known what became, and those that are held are queued.
func (c *Client) Renew() error {
	defer runtime.KeepAlive(c)
	return must(C.kf_client_renew(&c.handle))
}

// End ends the client.
func (c *Client) End() error {
	defer runtime.KeepAlive(c)
	return must(C.kf_client_end(&c.handle))
}

// Tick has the server asked how the calls that are sent fared.
func (c *Client) Tick() error {
	defer runtime.KeepAlive(c)
	return must(C.kf_client_tick(&c.handle))
}

// Ping has the server answer a ping of this number.
func (c *Client) Ping(id uint64) error {
	defer runtime.KeepAlive(c)
	return must(C.kf_client_ping(&c.handle, C.uint64_t(id)))
}

// AskSalts has the server tell so many of its next salts.
func (c *Client) AskSalts(count uint32) error {
	defer runtime.KeepAlive(c)
	return must(C.kf_client_ask_salts(&c.handle, C.uint32_t(count)))
}

// DropAnswer has the server drop the answer to a call that is sent.
func (c *Client) DropAnswer(call uint64) error {
	defer runtime.KeepAlive(c)
	return must(C.kf_client_drop_answer(&c.handle, C.uint64_t(call)))
}

// State gives what became of a call, and its code or 0.
func (c *Client) State(call uint64) (State, uint32, error) {
	defer runtime.KeepAlive(c)
	var state, code C.uint32_t
	err := must(C.kf_client_state(&c.handle, C.uint64_t(call), &state, &code))
	return State(state), uint32(code), err
}

// TakeReply gives the reply to a call. The client keeps it.
func (c *Client) TakeReply(call uint64) ([]byte, error) {
	defer runtime.KeepAlive(c)
	return bytesOf(func(room *C.uint8_t, roomLen C.size_t, count *C.size_t) C.kf_status {
		return C.kf_client_take_reply(&c.handle, C.uint64_t(call), room, roomLen, count)
	})
}

// CallsDecided tells whether each call is done, refused or unknown.
func (c *Client) CallsDecided() (bool, error) {
	defer runtime.KeepAlive(c)
	var decided C.int
	err := must(C.kf_client_calls_decided(&c.handle, &decided))
	return decided != 0, err
}

// Session gives the number of its session.
func (c *Client) Session() (uint64, error) {
	defer runtime.KeepAlive(c)
	var session C.uint64_t
	err := must(C.kf_client_session(&c.handle, &session))
	return uint64(session), err
}

// Server is a server, whose calls are answered from outside.
type Server struct{ handle C.kf_server }

// NewServer makes a server without sessions, with the keys of the text of a key file.
func NewServer(keys []byte) (*Server, error) {
	seed, err := seed()
	if err != nil {
		return nil, err
	}
	server := new(Server)
	if err := must(C.kf_server_new(&server.handle, first(keys), C.size_t(len(keys)), first(seed))); err != nil {
		return nil, err
	}
	runtime.SetFinalizer(server, (*Server).Close)
	return server, nil
}

// Close frees the server now; else it is freed when nothing holds it. Every later call gives Closed.
func (s *Server) Close() {
	C.kf_server_free(&s.handle)
	runtime.KeepAlive(s)
}

// HandlePacket takes a packet that came, and gives the name of its session, whose packets go where this one came from. Of one that doesn't
// open (IsRefused) only the moment counts. It gives Busy while a request waits for its answer, as Tick, Attach and Restart do.
func (s *Server) HandlePacket(now uint64, packet []byte) (SessionName, error) {
	defer runtime.KeepAlive(s)
	var key, session C.uint64_t
	err := must(C.kf_server_handle_packet(&s.handle, C.uint64_t(now), first(packet), C.size_t(len(packet)), &key, &session))
	return SessionName{uint64(key), uint64(session)}, err
}

// Tick says that time passed: calls that have waited too long for others are answered.
func (s *Server) Tick(now uint64) error {
	defer runtime.KeepAlive(s)
	return must(C.kf_server_tick(&s.handle, C.uint64_t(now)))
}

// Attach says that a packet came for a session, the first one over this connection: what the server keeps for it is said again.
func (s *Server) Attach(name SessionName, now uint64) error {
	defer runtime.KeepAlive(s)
	return must(C.kf_server_attach(&s.handle, C.uint64_t(name.Key), C.uint64_t(name.Session), C.uint64_t(now)))
}

// Restart starts again, with no session left.
func (s *Server) Restart() error {
	defer runtime.KeepAlive(s)
	return must(C.kf_server_restart(&s.handle))
}

// Ready gives how many requests are ready.
func (s *Server) Ready() (uint64, error) {
	defer runtime.KeepAlive(s)
	var ready C.uint64_t
	err := must(C.kf_server_ready(&s.handle, &ready))
	return uint64(ready), err
}

// NextRequest gives the next ready request, or nil where there is none. Until it is answered, be it by an error, the server takes nothing else,
// and this gives it again.
func (s *Server) NextRequest() ([]byte, error) {
	defer runtime.KeepAlive(s)
	var there C.int
	request, err := bytesOf(func(room *C.uint8_t, roomLen C.size_t, count *C.size_t) C.kf_status {
		return C.kf_server_next_request(&s.handle, &there, room, roomLen, count)
	})
	if there == 0 {
		return nil, err
	}
	return request, err
}

// Answer says that the request that was handed out has run, and gives its reply, whole words of 4 bytes.
func (s *Server) Answer(now uint64, reply []byte) error {
	defer runtime.KeepAlive(s)
	return must(C.kf_server_answer(&s.handle, C.uint64_t(now), first(reply), C.size_t(len(reply))))
}

// PollTransmit gives the packet that is to be sent next, or nil where there is none, with the session that it is for. Each is handed out once.
func (s *Server) PollTransmit() (SessionName, []byte, error) {
	defer runtime.KeepAlive(s)
	var key, session C.uint64_t
	packet, err := bytesOf(func(room *C.uint8_t, roomLen C.size_t, count *C.size_t) C.kf_status {
		return C.kf_server_poll_transmit(&s.handle, &key, &session, room, roomLen, count)
	})
	if len(packet) == 0 {
		return SessionName{}, nil, err
	}
	return SessionName{uint64(key), uint64(session)}, packet, err
}
