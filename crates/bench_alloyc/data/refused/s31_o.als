sig e {}
