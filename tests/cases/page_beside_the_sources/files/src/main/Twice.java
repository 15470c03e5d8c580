twice a
