"""What the commands of this folder share: reading lines of JSON, sums, databases, pages, and tasks for a cluster."""
