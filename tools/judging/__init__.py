"""What tools/legal has of its own: the replay of a report by the machine."""
