count # of items
