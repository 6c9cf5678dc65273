"""Who asks: the login service beside the gateway. It knows passwords, sessions and the tokens of programs, and no channel."""
