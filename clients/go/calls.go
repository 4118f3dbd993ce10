package nexus

import "context"

// Hello asks by a Hello.
func (c *Client) Hello(ctx context.Context, name, secret string) (Reply, error) {
	return c.Ask(ctx, Hello{name, secret})
}

// Say asks by a Say.
func (c *Client) Say(ctx context.Context, principal, formula string) (Reply, error) {
	return c.Ask(ctx, Say{principal, formula})
}

// Transfer asks by a Transfer.
func (c *Client) Transfer(ctx context.Context, label uint64, receiver string) (Reply, error) {
	return c.Ask(ctx, Transfer{label, receiver})
}

// Delete asks by a Delete.
func (c *Client) Delete(ctx context.Context, label uint64) (Reply, error) {
	return c.Ask(ctx, Delete{label})
}

// NewObject asks by a NewObject.
func (c *Client) NewObject(ctx context.Context, name string) (Reply, error) {
	return c.Ask(ctx, NewObject{name})
}

// SetGoal asks by a SetGoal.
func (c *Client) SetGoal(ctx context.Context, operation, object, formula string) (Reply, error) {
	return c.Ask(ctx, SetGoal{operation, object, formula})
}

// ClearGoal asks by a ClearGoal.
func (c *Client) ClearGoal(ctx context.Context, operation, object string) (Reply, error) {
	return c.Ask(ctx, ClearGoal{operation, object})
}

// SetProof asks by a SetProof.
func (c *Client) SetProof(ctx context.Context, operation, object, proof string) (Reply, error) {
	return c.Ask(ctx, SetProof{operation, object, proof})
}

// ClearProof asks by a ClearProof.
func (c *Client) ClearProof(ctx context.Context, operation, object string) (Reply, error) {
	return c.Ask(ctx, ClearProof{operation, object})
}

// Bind asks by a Bind.
func (c *Client) Bind(ctx context.Context, principal string, port uint64) (Reply, error) {
	return c.Ask(ctx, Bind{principal, port})
}

// Unbind asks by an Unbind.
func (c *Client) Unbind(ctx context.Context, principal string) (Reply, error) {
	return c.Ask(ctx, Unbind{principal})
}

// Call asks by a Call.
func (c *Client) Call(ctx context.Context, operation, object string, argument uint64) (Reply, error) {
	return c.Ask(ctx, Call{operation, object, argument})
}

// See asks by a See, and returns the number of Seen, which is at least the length. With any other reply comes a *NotSeen,
// and 0.
func (c *Client) See(ctx context.Context, length uint64) (uint64, error) {
	reply, err := c.Ask(ctx, See{length})
	if err != nil {
		return 0, err
	}
	seen, isSeen := reply.(Seen)
	if !isSeen {
		return 0, &NotSeen{reply}
	}
	return seen.At, nil
}
