"""Routers' configurations, and what the routers do by them (tools/config): the language of FRR 8.4 here, that of BIRD
2.0 in `bird`, and what is common to both."""
