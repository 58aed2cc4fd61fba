"""What the tools for a live trust centre share: sessions of tc_centre, their logs, and a centre's tables."""
