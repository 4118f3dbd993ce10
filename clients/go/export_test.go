package nexus

import "testing"

// StartService starts a service for one session, and returns its address once it listens.
func StartService(t *testing.T, policy string) string {
	it := start(t, policy, 1, 2)
	it.dial(t).Close()
	return it.address
}
