"""What tools/timeline is made of: reading a report, replaying its sessions, and drawing both."""
