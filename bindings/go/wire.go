package kifzaro

import (
	"encoding/binary"
	"errors"
	"io"
)

const packetBytesMax = 1_048_576

// Wire is one end of a connection of the intermediate form, and of no other: each packet stands behind its length in 4 bytes, the lowest first.
// This is plain Go, and not proved.
type Wire struct{ stream io.ReadWriter }

// ClientWire is a client's end of a new connection, which sends the four bytes that name the form.
func ClientWire(stream io.ReadWriter) (*Wire, error) {
	_, err := stream.Write([]byte{0xee, 0xee, 0xee, 0xee})
	return &Wire{stream}, err
}

// ServerWire is a server's end of a new connection, which takes these four bytes.
func ServerWire(stream io.ReadWriter) (*Wire, error) {
	var start [4]byte
	if _, err := io.ReadFull(stream, start[:]); err != nil {
		return nil, err
	}
	if start != [4]byte{0xee, 0xee, 0xee, 0xee} {
		return nil, errors.New("the connection isn't of the intermediate form")
	}
	return &Wire{stream}, nil
}

// Send sends a packet.
func (w *Wire) Send(packet []byte) error {
	frame := make([]byte, 4, 4+len(packet))
	binary.LittleEndian.PutUint32(frame, uint32(len(packet)))
	_, err := w.stream.Write(append(frame, packet...))
	return err
}

// Receive waits for the next packet; io.EOF is the connection's end behind one.
func (w *Wire) Receive() ([]byte, error) {
	var head [4]byte
	if _, err := io.ReadFull(w.stream, head[:]); err != nil {
		return nil, err
	}
	count := binary.LittleEndian.Uint32(head[:])
	if count > packetBytesMax {
		return nil, errors.New("no packet is so long")
	}
	packet := make([]byte, count)
	_, err := io.ReadFull(w.stream, packet)
	return packet, err
}
