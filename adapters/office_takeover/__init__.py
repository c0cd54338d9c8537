"""From a primary of BIND to an office: what adapters/office-takeover is made of."""
