"""And-Inverter Graphs, their transforms and their files, written from their definitions alone:
what calls on circuits are compared with."""
