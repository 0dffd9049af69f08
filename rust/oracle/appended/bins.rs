const _: () = (); // takes the doc comment above, whose own item was cut off
