"""Logs of AWS WAF: their lines, what a line says of the questions of a web ACL, and calls of the program on lines."""
