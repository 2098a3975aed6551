"""The same stack without tags."""
from stack import Stack

stack = Stack(is_tagged=False)
assert stack.begin()
assert stack.holders[stack.top] == "bob"
stack.trace.clash("broken", 1, 2)
