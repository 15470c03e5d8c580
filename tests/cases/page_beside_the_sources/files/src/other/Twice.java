twice b
