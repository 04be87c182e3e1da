"""Routers' configurations in the language of BIRD 2.0, and what the routers do by them (tools/config)."""
