"""Tools beside the proved program `wafreview`: the way from what users have to an answer that they can act on."""
