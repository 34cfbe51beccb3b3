/* What no policy in a page can refuse: that a text which became an element leaves the page for an address of its own, and
 * takes along what that address holds. Downloads, places in the page, and the browser's own keys are let through. */

const withoutPlace = address => address.split("#")[0];
window.navigation?.addEventListener("navigate", event => {
  const leaves = withoutPlace(event.destination.url) !== withoutPlace(location.href);
  if (leaves && event.downloadRequest === null && event.navigationType !== "traverse") event.preventDefault();
});
