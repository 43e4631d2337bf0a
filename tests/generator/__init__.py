"""Random networks, streams and certificates, and a slow model of what the program must print of them."""
