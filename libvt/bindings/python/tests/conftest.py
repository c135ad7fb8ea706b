"""The plugin's own tests need pytester."""
pytest_plugins = ["pytester"]
