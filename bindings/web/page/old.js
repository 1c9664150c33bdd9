/* Says that the page's script did not begin, since the browser has no modules or doesn't know the language: so this is written for old ones. */
addEventListener("load", function () {
  if (window.illcanonPage) return;
  document.getElementById("fault").hidden = false;
  document.getElementById("fault").textContent = "This browser is too old for the page, which needs JavaScript of 2022 and WebAssembly.";
});
