/* A program that uses SDL: a window, pictures, and the clipboard. It ends as its window is
 * closed. */
#include <SDL2/SDL.h>

int main(void)
{
	if (SDL_Init(SDL_INIT_VIDEO)) {
		fprintf(stderr, "%s\n", SDL_GetError());
		return 1;
	}
	SDL_Window *window = SDL_CreateWindow("sdl", 0, 0, 200, 200, 0);
	SDL_Event event = { 0 };
	for (Uint32 colour = 0; window && event.type != SDL_QUIT; colour += 1000) {
		SDL_Surface *surface = SDL_GetWindowSurface(window);
		if (surface) {
			SDL_FillRect(surface, NULL, colour);
			SDL_UpdateWindowSurface(window);
		}
		SDL_free(SDL_GetClipboardText());
		SDL_WaitEventTimeout(&event, 20);
	}
	SDL_Quit();
	return !window;
}
