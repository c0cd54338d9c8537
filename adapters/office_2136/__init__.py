"""A gateway from DNS UPDATE with TSIG to an office: what adapters/office-2136 is made of."""
