"""What the page shows beside the records: for each user a folder of small JSON files, which the front server hands out to it only."""
