"""Scenarios: schedules as people write them. docs/SCENARIOS.md describes the language."""
