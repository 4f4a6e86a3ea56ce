"""What more and less capacity is worth."""
