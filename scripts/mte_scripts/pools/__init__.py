"""Static pools of blocks for recorded runs, with a certificate, as C for systems without a heap."""
