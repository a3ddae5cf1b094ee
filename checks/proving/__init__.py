"""How the gate and the builds prove: `rt` in another order, over the work of their own run."""
