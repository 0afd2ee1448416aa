"""Tests of the module. What is expected comes from the documents, the header, the examples and the worked cases."""
