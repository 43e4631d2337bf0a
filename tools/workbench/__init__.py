"""What the tools beside the program share: texts with their places, the program's calls, and how a tool ends."""
