"""Differential tests of the semantics of WebAssembly with Node: of each form in the module, and of
control instructions."""

from node import ModuleInNode


def test_each_form_of_an_instruction():
    node = ModuleInNode()
    assert len(node.names) > 60
    assert list(node.differences()) == []
