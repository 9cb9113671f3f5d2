"""The pod's ports, one file each, as document 01 gives them."""
