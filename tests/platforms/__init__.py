"""What needs more than the gate's set-up: other systems, and programs that users have."""
