"""What heomtsel-network reports, read and drawn."""
