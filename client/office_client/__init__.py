"""The client `office`: reads and changes names of DNS zones at an office (zoneoffice)."""
