"""A language server for scripts and plans: the checker's answer while one types (Language Server Protocol 3.17, docs/EDITORS.md)."""
