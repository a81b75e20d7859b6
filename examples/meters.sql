table meters (place text, day int, litres int, key place);
ready;
put meters ('north', 1, 120);
put meters ('south', 1, 95);
put meters ('north', 2, 131);
put meters ('o''hara', 2, -4);
show meters;
