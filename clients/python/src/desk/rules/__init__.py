"""Rules by their names."""
from .lifelike import is_same_rule, rule_text

__all__ = ["is_same_rule", "rule_text"]
