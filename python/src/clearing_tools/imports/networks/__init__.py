"""Networks that have given totals of what banks owe and are owed."""
