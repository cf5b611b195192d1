package listen

import (
	"container/list"
	"net"
	"sync"
)

// A crowd is the connections of a listener, at most so many. One that comes beyond that takes the place of the one on which nothing is
// under way since the longest time: it is new, keeps still, or sends its request slowly. So they keep nobody out.
type crowd struct {
	net.Listener
	most int

	// What stands below lock is under it, also of each member, but for its body.
	lock  sync.Mutex
	count int
	// The connections on which nothing is under way, the one that is so since the longest time first.
	still list.List
}

// A member is a connection of a crowd.
type member struct {
	net.Conn
	crowd *crowd

	// Under the lock of the crowd. Its place among those that are still, if it is. Busy counts the requests that are under way.
	at     *list.Element
	busy   int
	closed bool

	// What became of the body of the request that is under way, of its handler alone.
	body bodyState
}

// A bodyState says what was read of a body.
type bodyState uint8

const (
	unread bodyState = iota
	begun
	// Over says that it was read, or that no more of it comes in time.
	over
)

// Accept gives the next connection.
func (c *crowd) Accept() (net.Conn, error) {
	accepted, err := c.Listener.Accept()
	if err != nil {
		return nil, err
	}
	came := &member{Conn: accepted, crowd: c}
	c.lock.Lock()
	c.count++
	var gone *member
	if c.count > c.most {
		gone = came
		if c.still.Len() > 0 {
			gone = c.still.Front().Value.(*member)
		}
	}
	came.at = c.still.PushBack(came)
	c.lock.Unlock()
	if gone != nil {
		gone.Close()
	}
	return came, nil
}

// Close ends the connection.
func (m *member) Close() error {
	crowd := m.crowd
	crowd.lock.Lock()
	if !m.closed {
		m.closed = true
		crowd.count--
		m.leaveStill()
	}
	crowd.lock.Unlock()
	return m.Conn.Close()
}

// CloseWrite says that no more comes from here, and leaves the other side the time to read what came.
func (m *member) CloseWrite() error {
	if half, isHalf := m.Conn.(interface{ CloseWrite() error }); isHalf {
		return half.CloseWrite()
	}
	return nil
}

func (m *member) leaveStill() {
	if m.at != nil {
		m.crowd.still.Remove(m.at)
		m.at = nil
	}
}

// begin says that a request is under way on the connection, and end that it is no more.
func (m *member) begin() {
	m.crowd.lock.Lock()
	defer m.crowd.lock.Unlock()
	m.busy++
	m.leaveStill()
}

func (m *member) end() {
	m.crowd.lock.Lock()
	defer m.crowd.lock.Unlock()
	m.busy--
	if m.busy == 0 && !m.closed {
		m.at = m.crowd.still.PushBack(m)
	}
}

// size is how many connections there are.
func (c *crowd) size() int {
	c.lock.Lock()
	defer c.lock.Unlock()
	return c.count
}
